;; check => refused malformed at 11
(module (memory i64 1))
