; The CRC-32 of 8 messages of 8 bytes each. A child does a message, a byte a cell, and writes its sum.
@in = global [64 x i64] zeroinitializer
@out = global [8 x i64] zeroinitializer

define i64 @byte(i64 %crc, i64 %byte) {
  ;! budget 0 78
entry:
  ;! left 0 78
  %low = and i64 %byte, 255
  %start = xor i64 %crc, %low
  br label %head
head:
  ;! keeps %i >= 0
  ;! keeps %i <= 8
  ;! left 0 75-9*%i
  %i = phi i64 [ 0, %entry ], [ %i1, %bit ]
  %c = phi i64 [ %start, %entry ], [ %c1, %bit ]
  %more = icmp slt i64 %i, 8
  br i1 %more, label %bit, label %done
bit:
  ;! keeps %i >= 0
  ;! keeps %i <= 7
  ;! left 0 73-9*%i
  %last = and i64 %c, 1
  %mask = sub i64 0, %last
  %poly = and i64 %mask, 3988292384
  %half = lshr i64 %c, 1
  %c1 = xor i64 %half, %poly
  %i1 = add nsw i64 %i, 1
  br label %head
done:
  ;! left 0 1
  ret i64 %c
}

define i64 @message(ptr noalias dereferenceable(512) %in, i64 %lo, i64 %hi) {
  ;! requires %lo >= 0
  ;! requires %lo <= %hi
  ;! requires %hi <= %lo+8
  ;! requires %hi <= 64
  ;! reads %in %lo %hi
  ;! budget 0 685
entry:
  ;! left 0 85*%hi+5-85*%lo
  br label %head
head:
  ;! keeps %lo >= 0
  ;! keeps %lo <= %j
  ;! keeps %j <= %hi
  ;! keeps %hi <= 64
  ;! left 0 85*%hi+4-85*%j
  %j = phi i64 [ %lo, %entry ], [ %k, %body ]
  %crc = phi i64 [ 4294967295, %entry ], [ %crc1, %body ]
  %more = icmp slt i64 %j, %hi
  br i1 %more, label %body, label %done
body:
  ;! keeps %lo >= 0
  ;! keeps %lo <= %j
  ;! keeps %j+1 <= %hi
  ;! keeps %hi <= 64
  ;! left 0 85*%hi+2-85*%j
  %p = getelementptr inbounds i64, ptr %in, i64 %j
  %x = load i64, ptr %p
  %crc1 = call i64 @byte(i64 %crc, i64 %x)
  %k = add nsw i64 %j, 1
  br label %head
done:
  ;! left 0 2
  %r = xor i64 %crc, 4294967295
  ret i64 %r
}

define i64 @main() {
  ;! reads @in 0 64
  ;! writes @out 0 8
  ;! budget 0 5575
entry:
  ;! left 0 5575
  %s = call token @llvm.syncregion.start()
  br label %head
head:
  ;! keeps %m >= 0
  ;! keeps %m <= 8
  ;! pending %s reads @in 0 64
  ;! pending %s writes @out 0 %m
  ;! left 0 5573-696*%m
  %m = phi i64 [ 0, %entry ], [ %m1, %next ]
  %more = icmp slt i64 %m, 8
  br i1 %more, label %fork, label %done
fork:
  ;! keeps %m >= 0
  ;! keeps %m <= 7
  ;! pending %s reads @in 0 64
  ;! pending %s writes @out 0 %m
  ;! left 0 5571-696*%m
  detach within %s, label %one, label %next
one:
  ;! keeps %m >= 0
  ;! keeps %m <= 7
  ;! left 0 691
  ;! foot reads @in 0 64
  ;! foot writes @out %m %m+1
  ;! shows 8*%m >= 0
  ;! shows 8*%m <= 56
  %lo = mul nsw i64 %m, 8
  ;! shows %lo >= 0
  ;! shows %lo <= 56
  %hi = add nsw i64 %lo, 8
  %crc = call i64 @message(ptr @in, i64 %lo, i64 %hi)
  %q = getelementptr inbounds i64, ptr @out, i64 %m
  store i64 %crc, ptr %q
  reattach within %s, label %next
next:
  ;! keeps %m >= 0
  ;! keeps %m <= 7
  ;! pending %s reads @in 0 64
  ;! pending %s writes @out 0 %m+1
  ;! left 0 4879-696*%m
  %m1 = add nsw i64 %m, 1
  br label %head
done:
  ;! pending %s reads @in 0 64
  ;! pending %s writes @out 0 %m
  ;! left 0 3
  sync within %s, label %out
out:
  ;! left 0 2
  %x = load i64, ptr @out
  ret i64 %x
}
