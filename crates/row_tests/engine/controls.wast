;; Blocks, choices, branches, loops, calls, locals, globals and traps.
(module
  (global (export "count") (mut i32) (i32.const 3))
  (global (export "limit") i64 (i64.const 5)))
(register "outside")

(module
  (import "outside" "count" (global (mut i32)))
  (import "outside" "limit" (global i64))
  (func (export "table") (param i32) (result i32)
    block (result i32)
      block
        block
          block
            local.get 0
            br_table 0 1 2
          end
          i32.const 10
          br 2
        end
        i32.const 11
        br 1
      end
      i32.const 12
    end)
  (func (export "table with values") (param i32) (result i32)
    block (result i32)
      block (result i32)
        i32.const 5
        i32.const 7
        local.get 0
        br_table 0 1 0 1
      end
      i32.const 1
      i32.add
    end)
  (func (export "table of no labels") (param i32) (result i32)
    i32.const 6
    local.get 0
    br_table 0)
  (func (export "two bodies") (param i32) (result i32)
    local.get 0
    if (result i32)
      i32.const 1
    else
      i32.const 2
    end)
  (func (export "one body") (param i32) (result i32)
    local.get 0
    if
      i32.const 9
      local.set 0
    end
    local.get 0)
  (func (export "bodies with parameters") (param i32 i32) (result i32 i32)
    i32.const 50
    local.get 0
    local.get 1
    if (param i32) (result i32)
      i32.const 1
      i32.add
    else
      i32.const 3
      i32.mul
    end)
  (func (export "branch out of a body") (param i32) (result i32)
    local.get 0
    if (result i32)
      i32.const 1
      i32.const 2
      br 0
    else
      i32.const 3
      br 1
    end
    i32.const 4
    i32.add)
  (func (export "select i32") (param i32) (result i32) i32.const 7 i32.const 8 local.get 0 select)
  (func (export "select i64") (param i32) (result i64) i64.const 7 i64.const 8 local.get 0 select)
  (func (export "select f32") (param i32) (result f32) f32.const 7 f32.const 8 local.get 0 select)
  (func (export "select f64") (param i32) (result f64)
    f64.const 0x0.0000000000007p-1022 f64.const 0x0.0000000000008p-1022 local.get 0 select)
  (func (export "drop") (result i32) i32.const 1 i32.const 2 drop)
  (func (export "loop with a parameter") (param i32) (result i32)
    local.get 0
    loop (param i32) (result i32)
      i32.const 2
      i32.mul
      local.tee 0
      local.get 0
      local.get 0
      i32.const 100
      i32.lt_u
      br_if 0
      drop
    end)
  (func (export "loop without a turn") (result i32) loop (result i32) i32.const 4 end)
  (func (export "loop in a loop") (param i32 i32) (result i32) (local i32 i32)
    loop
      local.get 1
      local.set 2
      loop
        local.get 3
        i32.const 1
        i32.add
        local.set 3
        local.get 2
        i32.const 1
        i32.sub
        local.tee 2
        br_if 0
        local.get 0
        i32.const 1
        i32.sub
        local.tee 0
        br_if 1
      end
    end
    local.get 3)
  (func (export "branch drops values") (result i32)
    i32.const 1
    block (result i32)
      i32.const 2
      i32.const 3
      br 0
    end
    i32.add)
  (func (export "branch two blocks out") (result i32)
    block (result i32)
      i32.const 100
      block (result i32)
        i32.const 1
        i32.const 2
        i32.const 7
        br 1
      end
      i32.add
    end)
  (func (export "branch with two values") (result i32 i64)
    block (result i32 i64)
      i32.const 1
      i32.const 2
      i64.const 3
      br 0
    end)
  (func (export "branch out of the function") (param i32) (result i32)
    i32.const 40
    i32.const 50
    local.get 0
    br_if 0
    i32.add)
  (func (export "branch over a trap")
    block
      br 0
      unreachable
    end)
  (func (export "block with parameters") (param i32 i32) (result i32)
    local.get 0
    local.get 1
    block (param i32 i32) (result i32)
      i32.sub
    end)
  (func $factorial (export "factorial") (param i64) (result i64)
    local.get 0
    i64.eqz
    if (result i64)
      i64.const 1
    else
      local.get 0
      local.get 0
      i64.const 1
      i64.sub
      call $factorial
      i64.mul
    end)
  (func $minus (export "minus") (param i32 i32) (result i32)
    local.get 0
    local.get 1
    i32.sub
    local.tee 0)
  (func (export "call in a row") (result i32)
    i32.const 100
    i32.const 9
    i32.const 4
    call $minus
    i32.add)
  (func (export "call keeps locals") (param i32) (result i32)
    local.get 0
    i32.const 9
    i32.const 4
    call $minus
    drop
    local.get 0
    i32.add)
  (func $swap (export "swap") (param i32 i64) (result i64 i32) local.get 1 local.get 0)
  (func (export "call with two results") (result i32)
    i32.const 6
    i64.const 7
    call $swap
    drop
    i32.wrap_i64)
  (func (export "first values of locals") (result i32 i64 f32 f64)
    (local i32 i64 f32 f64)
    local.get 0
    local.get 1
    local.get 2
    local.get 3)
  (func (export "set and tee") (param i32) (result i32) (local i32)
    local.get 0
    local.tee 1
    i32.const 1
    i32.add
    local.set 0
    local.get 0
    local.get 1
    i32.mul)
  (func (export "count") (result i32) global.get 0)
  (func (export "limit") (result i64) global.get 1)
  (func (export "set count") (param i32) local.get 0 global.set 0)
  (func $trap (export "trap") unreachable)
  (func $trap_below call $trap)
  (func (export "trap two calls down") (result i32) call $trap_below i32.const 1)
  (func (export "trap in one body") (param i32) (result i32)
    local.get 0
    if (result i32)
      i32.const 1
    else
      unreachable
    end)
  (func (export "trap after a set")
    i32.const 9
    global.set 0
    unreachable)
  (func (export "references are dropped") (result i32)
    ref.func $trap
    drop
    i32.const 1))

(assert_return (invoke "table" (i32.const 0)) (i32.const 10))
(assert_return (invoke "table" (i32.const 1)) (i32.const 11))
(assert_return (invoke "table" (i32.const 2)) (i32.const 12))
(assert_return (invoke "table" (i32.const 3)) (i32.const 12))
(assert_return (invoke "table" (i32.const 0xffffffff)) (i32.const 12))
(assert_return (invoke "table with values" (i32.const 0)) (i32.const 8))
(assert_return (invoke "table with values" (i32.const 1)) (i32.const 7))
(assert_return (invoke "table with values" (i32.const 2)) (i32.const 8))
(assert_return (invoke "table with values" (i32.const 3)) (i32.const 7))
(assert_return (invoke "table with values" (i32.const 0x80000000)) (i32.const 7))
(assert_return (invoke "table of no labels" (i32.const 0)) (i32.const 6))
(assert_return (invoke "table of no labels" (i32.const 1)) (i32.const 6))
(assert_return (invoke "two bodies" (i32.const 0)) (i32.const 2))
(assert_return (invoke "two bodies" (i32.const 1)) (i32.const 1))
(assert_return (invoke "two bodies" (i32.const 0x80000000)) (i32.const 1))
(assert_return (invoke "one body" (i32.const 0)) (i32.const 0))
(assert_return (invoke "one body" (i32.const 1)) (i32.const 9))
(assert_return (invoke "one body" (i32.const 0x80000000)) (i32.const 9))
(assert_return (invoke "bodies with parameters" (i32.const 20) (i32.const 1)) (i32.const 50) (i32.const 21))
(assert_return (invoke "bodies with parameters" (i32.const 20) (i32.const 0)) (i32.const 50) (i32.const 60))
(assert_return (invoke "branch out of a body" (i32.const 1)) (i32.const 6))
(assert_return (invoke "branch out of a body" (i32.const 0)) (i32.const 3))
(assert_return (invoke "select i32" (i32.const 0)) (i32.const 8))
(assert_return (invoke "select i32" (i32.const 1)) (i32.const 7))
(assert_return (invoke "select i32" (i32.const 0xffffffff)) (i32.const 7))
(assert_return (invoke "select i64" (i32.const 0)) (i64.const 8))
(assert_return (invoke "select i64" (i32.const 0x80000000)) (i64.const 7))
(assert_return (invoke "select f32" (i32.const 0)) (f32.const 8))
(assert_return (invoke "select f32" (i32.const 2)) (f32.const 7))
(assert_return (invoke "select f64" (i32.const 0)) (f64.const 0x0.0000000000008p-1022))
(assert_return (invoke "select f64" (i32.const 1)) (f64.const 0x0.0000000000007p-1022))
(assert_return (invoke "select f64" (i32.const 0xffffffff)) (f64.const 0x0.0000000000007p-1022))
(assert_return (invoke "drop") (i32.const 1))
(assert_return (invoke "loop with a parameter" (i32.const 5)) (i32.const 160))
(assert_return (invoke "loop with a parameter" (i32.const 60)) (i32.const 120))
(assert_return (invoke "loop without a turn") (i32.const 4))
(assert_return (invoke "loop in a loop" (i32.const 3) (i32.const 4)) (i32.const 12))
(assert_return (invoke "branch drops values") (i32.const 4))
(assert_return (invoke "branch two blocks out") (i32.const 7))
(assert_return (invoke "branch with two values") (i32.const 2) (i64.const 3))
(assert_return (invoke "branch out of the function" (i32.const 1)) (i32.const 50))
(assert_return (invoke "branch out of the function" (i32.const 0)) (i32.const 90))
(assert_return (invoke "branch over a trap"))
(assert_return (invoke "block with parameters" (i32.const 9) (i32.const 4)) (i32.const 5))
(assert_return (invoke "factorial" (i64.const 0)) (i64.const 1))
(assert_return (invoke "factorial" (i64.const 5)) (i64.const 120))
(assert_return (invoke "factorial" (i64.const 20)) (i64.const 2432902008176640000))
(assert_return (invoke "minus" (i32.const 4) (i32.const 9)) (i32.const 0xfffffffb))
(assert_return (invoke "call in a row") (i32.const 105))
(assert_return (invoke "call keeps locals" (i32.const 30)) (i32.const 60))
(assert_return (invoke "swap" (i32.const 1) (i64.const 2)) (i64.const 2) (i32.const 1))
(assert_return (invoke "call with two results") (i32.const 7))
(assert_return (invoke "first values of locals") (i32.const 0) (i64.const 0) (f32.const 0) (f64.const 0))
(assert_return (invoke "set and tee" (i32.const 5)) (i32.const 30))
(assert_return (invoke "count") (i32.const 3))
(assert_return (invoke "limit") (i64.const 5))
(assert_return (invoke "set count" (i32.const 7)))
(assert_return (invoke "count") (i32.const 7))
(assert_return (invoke "limit") (i64.const 5))
(assert_trap (invoke "trap") "unreachable")
(assert_trap (invoke "trap two calls down") "unreachable")
(assert_return (invoke "trap in one body" (i32.const 1)) (i32.const 1))
(assert_trap (invoke "trap in one body" (i32.const 0)) "unreachable")
(assert_trap (invoke "trap after a set") "unreachable")
(assert_return (invoke "count") (i32.const 9))
(assert_return (invoke "references are dropped") (i32.const 1))
