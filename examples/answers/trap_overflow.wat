;; run f i32:-1 => trap integer overflow in function 0 at 40
(module (func (export "f") (param i32) (result i32) i32.const 0x80000000 local.get 0 i32.div_s))
