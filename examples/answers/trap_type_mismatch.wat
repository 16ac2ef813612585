;; run f i32:0 => trap indirect call type mismatch in function 0 at 51
(module (table 2 funcref) (elem (i32.const 0) 0) (func (export "f") (param i32) local.get 0 call_indirect))
