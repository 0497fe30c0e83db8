;; Throws of the outside, and what catches them. wabt 1.0.32 does not read try_table: the bytes are put together by hand.
(module
  (import "outside" "call" (func $call))
  (import "outside" "give" (func $give (param i32) (result i32)))
  (import "outside" "count" (global $count (mut i32)))
  (func $third call $call)
  (func $second call $third)
  (func (export "caught") (result i32)
    block (result i32)
      block
        try_table (catch_all 0)
          call $second
        end
        i32.const 7
        br 1
      end
      i32.const 9
    end)
  (func (export "without a clause") (result i32)
    block (result i32)
      block
        try_table
          call $second
        end
        i32.const 7
        br 1
      end
      i32.const 9
    end)
  (func (export "plain blocks") (result i32)
    block (result i32)
      block
        block
          call $second
        end
        i32.const 7
        br 1
      end
      i32.const 9
    end)
  (func (export "through a loop") (result i32)
    block (result i32)
      block
        try_table (catch_all 0)
          loop
            call $third
            br 0
          end
        end
        i32.const 7
        br 1
      end
      i32.const 9
    end)
  (func (export "innermost") (result i32)
    block (result i32)
      block
        block
          try_table (catch_all 1)
            try_table (catch_all 1)
              call $second
            end
          end
          i32.const 7
          br 2
        end
        i32.const 8
        br 1
      end
      i32.const 9
    end)
  (func (export "first of two clauses") (result i32)
    block (result i32)
      block
        block
          try_table (catch_all 0) (catch_all 1)
            call $second
          end
          i32.const 7
          br 2
        end
        i32.const 8
        br 1
      end
      i32.const 9
    end)
  (func (export "outer label") (result i32)
    block (result i32)
      block
        block
          try_table (catch_all 1)
            call $second
          end
          i32.const 7
          br 2
        end
        i32.const 8
        br 1
      end
      i32.const 9
    end)
  (func (export "behind its end") (result i32)
    block (result i32)
      block
        try_table (catch_all 0)
          call $second
        end
        call $second
        i32.const 7
        br 1
      end
      i32.const 9
    end)
  (func (export "left by a branch") (result i32)
    block (result i32)
      block
        try_table (catch_all 0)
          br 0
        end
        call $second
        i32.const 7
        br 1
      end
      i32.const 9
    end)
  (func (export "second throw") (result i32)
    block (result i32)
      block
        try_table (catch_all 0)
          block
            try_table (catch_all 0)
              call $second
            end
          end
          call $third
        end
        i32.const 7
        br 1
      end
      i32.const 9
    end)
  (func (export "with a result") (result i32)
    block (result i32)
      block
        try_table (result i32) (catch_all 0)
          call $second
          i32.const 6
        end
        br 1
      end
      i32.const 9
    end)
  (func (export "operands are dropped") (result i32)
    i32.const 5
    block
      i32.const 6
      try_table (catch_all 0)
        i32.const 8
        call $second
        drop
      end
      drop
    end)
  (func (export "locals and globals are kept") (result i32) (local i32)
    block
      try_table (catch_all 0)
        i32.const 4
        local.set 0
        i32.const 11
        global.set $count
        call $second
      end
    end
    local.get 0
    global.get $count
    i32.add)
  (func (export "in a loop") (param i32) (result i32)
    loop
      block
        try_table (catch_all 0)
          call $third
          br 2
        end
      end
      local.get 0
      i32.const 1
      i32.add
      local.set 0
    end
    local.get 0)
  (func (export "trap") (result i32)
    block (result i32)
      block
        try_table (catch_all 0)
          unreachable
        end
        i32.const 7
        br 1
      end
      i32.const 9
    end)
  (func (export "given") (param i32) (result i32) local.get 0 call $give i32.const 1 i32.add)
  (func (export "given twice") (param i32) (result i32)
    i32.const 3
    global.set $count
    local.get 0
    call $give
    i32.const 4
    global.set $count
    call $give)
  (func (export "turns") (param i32)
    loop
      local.get 0
      i32.const 1
      i32.sub
      local.tee 0
      br_if 0
    end))
