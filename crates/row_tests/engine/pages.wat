;; Memories with pages of their own sizes, which wabt 1.0.32 does not read: the bytes are put together by hand. The page size
;; of "largest" is 2 to the power of 255.
(module
  (import "outside" "byte" (memory 0 (pagesize 1)))
  (import "outside" "four bytes" (memory 0 (pagesize 4)))
  (import "outside" "page" (memory 0 (pagesize 65536)))
  (import "outside" "largest" (memory 0 (pagesize 0x1p255)))
  (import "outside" "wide two bytes" (memory i64 0 (pagesize 2)))
  (import "outside" "narrow" (memory 0))
  (import "outside" "wide" (memory i64 0))
  (func (export "byte") (result i32) memory.size 0)
  (func (export "four bytes") (result i32) memory.size 1)
  (func (export "page") (result i32) memory.size 2)
  (func (export "largest") (result i32) memory.size 3)
  (func (export "wide two bytes") (result i64) memory.size 4)
  (func (export "narrow") (result i32) memory.size 5)
  (func (export "wide") (result i64) memory.size 6))
