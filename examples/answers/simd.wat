;; check => refused malformed at 23
(module (func v128.const i32x4 1 2 3 4 drop))
