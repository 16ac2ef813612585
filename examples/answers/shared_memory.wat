;; check => refused malformed at 11
(module (memory 1 2 shared))
