;; check => refused malformed at 11
(module (table 1 externref))
