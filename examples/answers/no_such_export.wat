;; run main => not runnable no such export
(module (func (export "f")))
