;; check => refused malformed at 23
(module (func return_call 0))
