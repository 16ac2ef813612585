;; check => refused malformed at 23
(module (func ref.null func drop))
