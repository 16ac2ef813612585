;; A memory of one page that may grow to the most that an image allows: an instance costs what it touches.
(module
  (memory 1)
  (func (export "small") (result i32) i32.const 7)
  ;; Grows by one page until it can't, stores to each page that is added, and counts them.
  (func (export "touch") (result i32) (local $added i32)
    (block $full
      (loop $next
        (br_if $full (i32.eq (memory.grow (i32.const 1)) (i32.const -1)))
        (i32.store (i32.mul (i32.sub (memory.size) (i32.const 1)) (i32.const 65536)) (i32.const 1))
        (local.set $added (i32.add (local.get $added) (i32.const 1)))
        (br $next)))
    (local.get $added))
  ;; Adds all pages at once, and touches none: what there was before.
  (func (export "once") (result i32) (memory.grow (i32.const 4095))))
