;; run f => trap call stack exhausted in function 0 at 29
(module (func (export "f") call 0))
