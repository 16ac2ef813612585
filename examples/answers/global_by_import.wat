;; check => refused invalid at 13
(module (global i32 (global.get 0)))
