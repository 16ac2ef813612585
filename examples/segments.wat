;; Data segments that a function puts into the memory when it is called.
(module
  (memory 1)
  (data $hello "hello\0a")
  (data (i32.const 64) "already there")
  (func $copy (param $to i32) (param $from i32) (param $count i32)
    (memory.init $hello (local.get $to) (local.get $from) (local.get $count)))
  ;; copies bytes of the passive segment, and gives those at an address
  (func (export "init") (param $to i32) (param $from i32) (param $count i32) (result i64)
    (call $copy (local.get $to) (local.get $from) (local.get $count))
    (i64.load (i32.const 16)))
  ;; the same, where the segment was dropped before
  (func (export "dropped") (param $count i32) (result i64)
    (data.drop $hello)
    (call $copy (i32.const 16) (i32.const 0) (local.get $count))
    (i64.load (i32.const 16)))
  ;; an active segment has no bytes any more when the module runs
  (func (export "active") (param $count i32) (result i32)
    (memory.init 1 (i32.const 0) (i32.const 0) (local.get $count))
    (i32.load8_u (i32.const 64))))
