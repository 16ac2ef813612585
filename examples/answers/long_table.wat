;; check => refused limit at 13
(module (table 100001 funcref))
