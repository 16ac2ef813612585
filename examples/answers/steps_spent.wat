;; run f --steps 1000 => steps spent
(module (func (export "f") loop br 0 end))
