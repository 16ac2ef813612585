;; check => refused invalid at 10
(module (memory 1) (memory 1))
