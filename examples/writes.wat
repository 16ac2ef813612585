;; Two ways to write: by `fd_write` of WASI preview 1, 4,096 bytes a call, and by `host.put`, a byte a call.
(module
  (import "wasi_snapshot_preview1" "fd_write" (func $fd_write (param i32 i32 i32 i32) (result i32)))
  (import "host" "put" (func $put (param i32)))
  (memory 1 1)
  ;; A vector at 0: 4,096 bytes from 4096 on. How many bytes were written is stored at 8.
  (data (i32.const 0) "\00\10\00\00\00\10\00\00")
  ;; Writes so many pieces of dots, and returns the error of the last call.
  (func (export "pieces") (param $left i32) (result i32) (local $error i32) (local $at i32)
    (loop $fill
      (i32.store8 offset=4096 (local.get $at) (i32.const 46))
      (local.set $at (i32.add (local.get $at) (i32.const 1)))
      (br_if $fill (i32.lt_u (local.get $at) (i32.const 4096))))
    (block $done
      (loop $next
        (br_if $done (i32.eqz (local.get $left)))
        (local.set $error (call $fd_write (i32.const 1) (i32.const 0) (i32.const 1) (i32.const 8)))
        (local.set $left (i32.sub (local.get $left) (i32.const 1)))
        (br $next)))
    (local.get $error))
  ;; Writes so many dots.
  (func (export "bytes") (param $left i32)
    (block $done
      (loop $next
        (br_if $done (i32.eqz (local.get $left)))
        (call $put (i32.const 46))
        (local.set $left (i32.sub (local.get $left) (i32.const 1)))
        (br $next)))))
