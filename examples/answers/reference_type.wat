;; check => refused malformed at 13
(module (func (param externref)))
