;; check => refused invalid at 21
(module (func (param i32)) (start 0))
