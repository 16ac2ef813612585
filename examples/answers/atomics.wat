;; check => refused malformed at 30
(module (memory 1) (func i32.const 0 i32.atomic.load drop))
