;; check => refused invalid at 25
(module (func) (export "f" (func 0)) (export "f" (func 0)))
