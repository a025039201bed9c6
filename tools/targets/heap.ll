; What the library asks of a heap, by malloc, realloc and free. Each returns whether there is a block, and its address. It is written for
; LLVM since the functions of C return two numbers otherwise on some processors.
declare ptr @malloc(i64)
declare ptr @realloc(ptr, i64)
declare void @free(ptr)

define internal { i64, i64 } @heap_answer(ptr %block) {
  %is_there = icmp ne ptr %block, null
  %one = zext i1 %is_there to i64
  %address = ptrtoint ptr %block to i64
  %other = select i1 %is_there, i64 %address, i64 16
  %half = insertvalue { i64, i64 } undef, i64 %one, 0
  %whole = insertvalue { i64, i64 } %half, i64 %other, 1
  ret { i64, i64 } %whole
}

define internal { i64, i64 } @rattle_alloc(i64 noundef %size, i64 noundef %align) {
  %is_empty = icmp eq i64 %size, 0
  %bytes = select i1 %is_empty, i64 %align, i64 %size
  %block = call ptr @malloc(i64 %bytes)
  %answer = call { i64, i64 } @heap_answer(ptr %block)
  ret { i64, i64 } %answer
}

define internal { i64, i64 } @rattle_realloc(ptr noundef %at, i64 noundef %old, i64 noundef %size, i64 noundef %align) {
  %is_empty = icmp eq i64 %size, 0
  %bytes = select i1 %is_empty, i64 %align, i64 %size
  %block = call ptr @realloc(ptr %at, i64 %bytes)
  %answer = call { i64, i64 } @heap_answer(ptr %block)
  ret { i64, i64 } %answer
}

define internal void @rattle_dealloc(ptr noundef %at) {
  call void @free(ptr %at)
  ret void
}
