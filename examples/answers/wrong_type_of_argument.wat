;; run f i32:1 => not runnable wrong arguments
(module (func (export "f") (param i64)))
