;; run f i32:0 => trap integer divide by zero in function 0 at 36
(module (func (export "f") (param i32) (result i32) i32.const 1 local.get 0 i32.div_u))
