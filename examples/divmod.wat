;; A function with two results, and one that stores to the memory, which `--peek` shows.
(module
  (memory (export "memory") 1 1)
  (func (export "divmod") (param $n i32) (param $d i32) (result i32 i32)
    (i32.div_u (local.get $n) (local.get $d))
    (i32.rem_u (local.get $n) (local.get $d)))
  (func (export "store") (param $address i32) (param $value i32)
    (i32.store (local.get $address) (local.get $value))))
