;; check => refused limit at 12
(module (memory 5000))
