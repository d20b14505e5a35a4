; What the proved code calls, over the functions of platform.h. ./lower puts this after the module, in place of the
; declarations of these names. What isn't called is dropped.

; The allocator answers a pair of words, which machines return in different ways: here it goes through a place in memory.
declare void @platform_alloc(ptr, i64, i64)
declare void @platform_realloc(ptr, ptr, i64, i64, i64)
declare void @platform_dealloc(ptr)

define internal { i64, i64 } @rattle_alloc(i64 %size, i64 %alignment) alwaysinline nounwind {
  %answer = alloca { i64, i64 }
  call void @platform_alloc(ptr %answer, i64 %size, i64 %alignment)
  %pair = load { i64, i64 }, ptr %answer
  ret { i64, i64 } %pair
}

define internal { i64, i64 } @rattle_realloc(ptr %block, i64 %kept, i64 %size, i64 %alignment) alwaysinline nounwind {
  %answer = alloca { i64, i64 }
  call void @platform_realloc(ptr %answer, ptr %block, i64 %kept, i64 %size, i64 %alignment)
  %pair = load { i64, i64 }, ptr %answer
  ret { i64, i64 } %pair
}

define internal void @rattle_dealloc(ptr %block) alwaysinline nounwind {
  call void @platform_dealloc(ptr %block)
  ret void
}

; Arguments, the environment and errors.
declare i64 @platform_arg(i64, ptr, i64)
declare i64 @platform_env(ptr, ptr, i64)
declare i64 @platform_errno()
declare void @platform_set_errno(i64)

define internal i64 @rattle_arg(i64 %number, ptr %buffer, i64 %room) alwaysinline nounwind {
  %length = call i64 @platform_arg(i64 %number, ptr %buffer, i64 %room)
  ret i64 %length
}

define internal i64 @rattle_env(ptr %name, ptr %buffer, i64 %room) alwaysinline nounwind {
  %length = call i64 @platform_env(ptr %name, ptr %buffer, i64 %room)
  ret i64 %length
}

define internal i32 @rattle_errno() alwaysinline nounwind {
  %error = call i64 @platform_errno()
  %low = trunc i64 %error to i32
  ret i32 %low
}

define internal void @rattle_set_errno(i32 %error) alwaysinline nounwind {
  %wide = sext i32 %error to i64
  call void @platform_set_errno(i64 %wide)
  ret void
}

; The one signal that is asked for: SIGPIPE (13) is to be ignored (1).
declare i64 @platform_ignore_pipe()

define internal i64 @__sysv_signal(i32 %number, i64 %action) alwaysinline nounwind {
  %answer = call i64 @platform_ignore_pipe()
  ret i64 %answer
}

; Files. (./lower gives each opening a mode: C's function has as many arguments as a call hands it.)
declare i64 @platform_open(ptr, i64, i64)
declare i64 @platform_close(i64)
declare i64 @platform_read(i64, ptr, i64)
declare i64 @platform_write(i64, ptr, i64)
declare i64 @platform_lseek(i64, i64, i64)
declare i64 @platform_is_terminal(i64)

define internal i32 @open(ptr %path, i32 %flags, i32 %mode) alwaysinline nounwind {
  %flags.wide = sext i32 %flags to i64
  %mode.wide = sext i32 %mode to i64
  %file = call i64 @platform_open(ptr %path, i64 %flags.wide, i64 %mode.wide)
  %low = trunc i64 %file to i32
  ret i32 %low
}

define internal i32 @close(i32 %file) alwaysinline nounwind {
  %file.wide = sext i32 %file to i64
  %answer = call i64 @platform_close(i64 %file.wide)
  %low = trunc i64 %answer to i32
  ret i32 %low
}

define internal i64 @read(i32 %file, ptr %buffer, i64 %room) alwaysinline nounwind {
  %file.wide = sext i32 %file to i64
  %count = call i64 @platform_read(i64 %file.wide, ptr %buffer, i64 %room)
  ret i64 %count
}

define internal i64 @write(i32 %file, ptr %bytes, i64 %count) alwaysinline nounwind {
  %file.wide = sext i32 %file to i64
  %written = call i64 @platform_write(i64 %file.wide, ptr %bytes, i64 %count)
  ret i64 %written
}

define internal i64 @lseek(i32 %file, i64 %offset, i32 %from) alwaysinline nounwind {
  %file.wide = sext i32 %file to i64
  %from.wide = sext i32 %from to i64
  %place = call i64 @platform_lseek(i64 %file.wide, i64 %offset, i64 %from.wide)
  ret i64 %place
}

; Only on Linux a file is replaced by a new one. Elsewhere each of these calls fails, by the number of a call that isn't
; there (ENOSYS, 38).
define internal ptr @realpath(ptr %path, ptr %resolved) alwaysinline nounwind {
  call void @platform_set_errno(i64 38)
  ret ptr null
}

define internal i32 @statx(i32 %folder, ptr %path, i32 %flags, i32 %mask, ptr %found) alwaysinline nounwind {
  call void @platform_set_errno(i64 38)
  ret i32 -1
}

define internal i32 @rename(ptr %old, ptr %new) alwaysinline nounwind {
  call void @platform_set_errno(i64 38)
  ret i32 -1
}

define internal i32 @unlink(ptr %path) alwaysinline nounwind {
  call void @platform_set_errno(i64 38)
  ret i32 -1
}

define internal i32 @fchmod(i32 %file, i32 %mode) alwaysinline nounwind {
  call void @platform_set_errno(i64 38)
  ret i32 -1
}

define internal i32 @fsync(i32 %file) alwaysinline nounwind {
  call void @platform_set_errno(i64 38)
  ret i32 -1
}

define internal i32 @ftruncate(i32 %file, i64 %length) alwaysinline nounwind {
  call void @platform_set_errno(i64 38)
  ret i32 -1
}

define internal i32 @fdatasync(i32 %file) alwaysinline nounwind {
  call void @platform_set_errno(i64 38)
  ret i32 -1
}

define internal i32 @flock(i32 %file, i32 %operation) alwaysinline nounwind {
  call void @platform_set_errno(i64 38)
  ret i32 -1
}

define internal i32 @isatty(i32 %file) alwaysinline nounwind {
  %file.wide = sext i32 %file to i64
  %answer = call i64 @platform_is_terminal(i64 %file.wide)
  %low = trunc i64 %answer to i32
  ret i32 %low
}
