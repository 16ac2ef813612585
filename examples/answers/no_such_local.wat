;; check => refused invalid at 23
(module (func local.get 3 drop))
