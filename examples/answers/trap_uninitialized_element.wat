;; run f i32:1 => trap uninitialized element in function 0 at 50
(module (table 2 funcref) (elem (i32.const 0) 0) (func (export "f") (param i32) i32.const 0 local.get 0 call_indirect (param i32)))
