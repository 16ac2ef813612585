;; run f i32:65533 => trap out of bounds memory access in function 0 at 39
(module (memory 1) (func (export "f") (param i32) (result i32) local.get 0 i32.load))
