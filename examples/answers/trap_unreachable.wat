;; run f => trap unreachable in function 0 at 30
(module (func (export "f") unreachable))
