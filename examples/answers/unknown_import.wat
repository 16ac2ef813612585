;; run f => not runnable unknown import
(module (import "env" "ext" (func)) (func (export "f")))
