;; check => refused malformed at 29
(module (func i32.const 1 i32.const 2 i32.const 0 select (result i32) drop))
