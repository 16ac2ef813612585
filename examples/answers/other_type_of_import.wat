;; run f => not runnable unknown import
(module (import "host" "put" (func (param i64))) (func (export "f")))
