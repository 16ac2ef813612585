;; check => refused invalid at 26
(module (func (result i32) i64.const 1))
