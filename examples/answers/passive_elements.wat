;; check => refused invalid at 27
(module (table 1 funcref) (func) (elem func 0))
