;; check => refused invalid at 23
(module (func drop))
