;; check => refused malformed at 18
(module (tag) (func throw 0))
