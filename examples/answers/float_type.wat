;; check => refused unsupported at 13
(module (func (param f64)))
