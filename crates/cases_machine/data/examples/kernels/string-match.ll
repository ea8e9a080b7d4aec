; All places of a pattern of %m letters in a text of %n: the places stand in @places in order, and the result is how many they are. A child
; looks at 256 places and notes in its own part of @found at which of them the pattern stands.
; Of its annotations an author wrote 78, and `tapirvm annotate` the others.
@text = global [4096 x i64] zeroinitializer
@pattern = global [16 x i64] zeroinitializer
@found = global [4096 x i64] zeroinitializer
@counts = global [16 x i64] zeroinitializer
@places = global [4096 x i64] zeroinitializer

define void @piece(ptr noalias dereferenceable(32768) %text, ptr noalias dereferenceable(128) %pattern, ptr noalias dereferenceable(32768) %found, ptr noalias dereferenceable(128) %counts, i64 %b, i64 %n, i64 %m) {
  ;! requires %b >= 0
  ;! requires %b <= 15
  ;! requires %n >= 0
  ;! requires %n <= 4096
  ;! requires %m >= 1
  ;! requires %m <= 16
  ;! reads %text 0 4096
  ;! reads %pattern 0 16
  ;! writes %found 256*%b 256*%b+256
  ;! writes %counts %b %b+1
  ;! budget 0 48393
entry:
  ;! left 0 48393
  ;! shows 256*%b >= 0
  ;! shows 256*%b <= 3840
  %lo = mul nsw i64 %b, 256
  %hi = add nsw i64 %lo, 256
  br label %places
places:
  ;! keeps %b >= 0
  ;! keeps %b <= 15
  ;! keeps %n >= 0
  ;! keeps %n <= 4096
  ;! keeps %m >= 1
  ;! keeps %m <= 16
  ;! keeps 256*%b >= 0
  ;! keeps %lo <= 3840
  ;! keeps %lo <= 256*%b
  ;! keeps 256*%b <= %lo
  ;! keeps %hi <= %lo+256
  ;! keeps %lo+256 <= %hi
  ;! keeps %i <= %hi
  ;! keeps %k >= %lo
  ;! keeps %k <= %i
  ;! left 0 189*%hi+6-189*%i
  %i = phi i64 [ %lo, %entry ], [ %i1, %next ]
  %k = phi i64 [ %lo, %entry ], [ %k1, %next ]
  %more = icmp slt i64 %i, %hi
  br i1 %more, label %fits, label %done
fits:
  ;! keeps %b >= 0
  ;! keeps %b <= 15
  ;! keeps %n >= 0
  ;! keeps %n <= 4096
  ;! keeps %m >= 1
  ;! keeps %m <= 16
  ;! keeps %lo <= %i
  ;! keeps %lo <= %k
  ;! keeps %k <= %i
  ;! keeps %lo >= 0
  ;! keeps %hi <= 4096
  ;! keeps %i+1 <= %hi
  ;! keeps %lo <= 256*%b
  ;! keeps 256*%b <= %lo
  ;! keeps %hi <= %lo+256
  ;! keeps %lo+256 <= %hi
  ;! left 0 189*%hi+4-189*%i
  ;! shows %i >= 0
  ;! shows %i <= 4095
  %end = add nsw i64 %i, %m
  %inside = icmp sle i64 %end, %n
  br i1 %inside, label %letters, label %done
letters:
  ;! keeps %b >= 0
  ;! keeps %b <= 15
  ;! keeps %n >= 0
  ;! keeps %n <= 4096
  ;! keeps %m >= 1
  ;! keeps %m <= 16
  ;! keeps %lo <= %i
  ;! keeps %lo <= %k
  ;! keeps %k <= %i
  ;! keeps 256*%b <= 3840
  ;! keeps %lo >= 0
  ;! keeps %i+1 <= %hi
  ;! keeps %end <= %n
  ;! keeps %lo <= 256*%b
  ;! keeps 256*%b <= %lo
  ;! keeps %hi <= %lo+256
  ;! keeps %lo+256 <= %hi
  ;! keeps %j >= 0
  ;! keeps %j <= %m
  ;! keeps %i+%m <= %n
  ;! left 0 189*%hi-189*%i+11*%m-11*%j-175
  %j = phi i64 [ 0, %fits ], [ %j1, %same ]
  %some = icmp slt i64 %j, %m
  br i1 %some, label %letter, label %hit
letter:
  ;! keeps %b >= 0
  ;! keeps %b <= 15
  ;! keeps %n >= 0
  ;! keeps %n <= 4096
  ;! keeps %m <= 16
  ;! keeps %lo <= %k
  ;! keeps %k <= %i
  ;! keeps %j >= 0
  ;! keeps %i+%m <= %n
  ;! keeps 256*%b >= 0
  ;! keeps %lo <= 3840
  ;! keeps %i+1 <= %hi
  ;! keeps %i >= 0
  ;! keeps %end <= %n
  ;! keeps %j+1 <= %m
  ;! keeps %lo <= 256*%b
  ;! keeps 256*%b <= %lo
  ;! keeps %hi <= %lo+256
  ;! keeps %lo+256 <= %hi
  ;! left 0 189*%hi-189*%i-11*%j+11*%m-177
  ;! shows %i+%j+1 <= %n
  %at = add nsw i64 %i, %j
  ;! shows %at >= %i
  ;! shows %at+1 <= %n
  %pt = getelementptr inbounds i64, ptr %text, i64 %at
  %x = load i64, ptr %pt
  %pp = getelementptr inbounds i64, ptr %pattern, i64 %j
  %y = load i64, ptr %pp
  %equal = icmp eq i64 %x, %y
  br i1 %equal, label %same, label %next
same:
  ;! keeps %b >= 0
  ;! keeps %b <= 15
  ;! keeps %n >= 0
  ;! keeps %n <= 4096
  ;! keeps %m <= 16
  ;! keeps %lo <= %k
  ;! keeps %k <= %i
  ;! keeps %j >= 0
  ;! keeps %i+%m <= %n
  ;! keeps %lo >= 0
  ;! keeps %i+1 <= %hi
  ;! keeps %end <= %n
  ;! keeps %j+1 <= %m
  ;! keeps %lo <= 256*%b
  ;! keeps 256*%b <= %lo
  ;! keeps %hi <= %lo+256
  ;! keeps %lo+256 <= %hi
  ;! left 0 189*%hi-189*%i-11*%j+11*%m-184
  %j1 = add nsw i64 %j, 1
  br label %letters
hit:
  ;! keeps %b >= 0
  ;! keeps %b <= 15
  ;! keeps %n >= 0
  ;! keeps %n <= 4096
  ;! keeps %m >= 1
  ;! keeps %m <= 16
  ;! keeps %lo <= %k
  ;! keeps %k <= %i
  ;! keeps %lo >= 0
  ;! keeps %lo <= 3840
  ;! keeps %i+1 <= %hi
  ;! keeps %lo <= 256*%b
  ;! keeps 256*%b <= %lo
  ;! keeps %hi <= %lo+256
  ;! keeps %lo+256 <= %hi
  ;! left 0 189*%hi-189*%i-177
  ;! shows %k+1 <= %hi
  ;! shows %k+1 <= %lo+256
  %pf = getelementptr inbounds i64, ptr %found, i64 %k
  store i64 %i, ptr %pf
  %kh = add nsw i64 %k, 1
  br label %next
next:
  ;! keeps %b >= 0
  ;! keeps %b <= 15
  ;! keeps %n >= 0
  ;! keeps %n <= 4096
  ;! keeps %m >= 1
  ;! keeps %m <= 16
  ;! keeps %lo <= %i
  ;! keeps %lo >= 0
  ;! keeps %hi <= 4096
  ;! keeps %i+1 <= %hi
  ;! keeps %lo <= 256*%b
  ;! keeps 256*%b <= %lo
  ;! keeps %hi <= %lo+256
  ;! keeps %lo+256 <= %hi
  ;! keeps %k1 >= %lo
  ;! keeps %k1 <= %i+1
  ;! left 0 189*%hi-189*%i-181
  %k1 = phi i64 [ %k, %letter ], [ %kh, %hit ]
  %i1 = add nsw i64 %i, 1
  br label %places
done:
  ;! keeps %b >= 0
  ;! keeps %b <= 15
  ;! left 0 4
  %count = sub i64 %k, %lo
  %pc = getelementptr inbounds i64, ptr %counts, i64 %b
  store i64 %count, ptr %pc
  ret void
}

define i64 @gather() {
  ;! reads @found 0 4096
  ;! reads @counts 0 16
  ;! writes @places 0 4096
  ;! budget 0 41140
entry:
  ;! left 0 41140
  br label %pieces
pieces:
  ;! keeps %b >= 0
  ;! keeps %b <= 16
  ;! keeps %w >= 0
  ;! keeps %w <= 256*%b
  ;! left 0 41139-2571*%b
  %b = phi i64 [ 0, %entry ], [ %b1, %next ]
  %w = phi i64 [ 0, %entry ], [ %v, %next ]
  %more = icmp slt i64 %b, 16
  br i1 %more, label %begin, label %done
begin:
  ;! keeps %b >= 0
  ;! keeps %w >= 0
  ;! keeps %w <= 256*%b
  ;! keeps %b <= 15
  ;! left 0 41137-2571*%b
  %pc = getelementptr inbounds i64, ptr @counts, i64 %b
  %count = load i64, ptr %pc
  %lo = mul nsw i64 %b, 256
  %below = icmp sle i64 %count, 256
  br i1 %below, label %copies, label %none
none:
  ;! left 0 1
  ret i64 -1
copies:
  ;! keeps %b >= 0
  ;! keeps %w >= 0
  ;! keeps %w <= 256*%b
  ;! keeps %b <= 15
  ;! keeps 256*%b >= 0
  ;! keeps 256*%b <= 3840
  ;! keeps %count <= 256
  ;! keeps %lo <= 256*%b
  ;! keeps 256*%b <= %lo
  ;! keeps %q >= 0
  ;! keeps %q <= 256
  ;! keeps %v >= 0
  ;! keeps %v <= 256*%b+%q
  ;! left 0 41132-2571*%b-10*%q
  %q = phi i64 [ 0, %begin ], [ %q1, %copy ]
  %v = phi i64 [ %w, %begin ], [ %v1, %copy ]
  %some = icmp slt i64 %q, %count
  br i1 %some, label %copy, label %next
copy:
  ;! keeps %b >= 0
  ;! keeps %w >= 0
  ;! keeps %w <= 256*%b
  ;! keeps %q >= 0
  ;! keeps %q <= 256
  ;! keeps %v >= 0
  ;! keeps %v <= 256*%b+%q
  ;! keeps %b <= 15
  ;! keeps 256*%b <= 3840
  ;! keeps %lo >= 0
  ;! keeps %lo <= 3840
  ;! keeps %count <= 256
  ;! keeps %q+1 <= %count
  ;! keeps %lo <= 256*%b
  ;! keeps 256*%b <= %lo
  ;! left 0 41130-2571*%b-10*%q
  ;! shows %q <= 255
  %at = add nsw i64 %lo, %q
  ;! shows %at >= %lo
  ;! shows %at <= %lo+255
  ;! shows %v <= 256*%b+255
  %pf = getelementptr inbounds i64, ptr @found, i64 %at
  %x = load i64, ptr %pf
  %pp = getelementptr inbounds i64, ptr @places, i64 %v
  store i64 %x, ptr %pp
  %q1 = add nsw i64 %q, 1
  %v1 = add nsw i64 %v, 1
  ;! shows %v1 <= 256*%b+%q+1
  br label %copies
next:
  ;! keeps %b >= 0
  ;! keeps %q <= 256
  ;! keeps %v >= 0
  ;! keeps %v <= 256*%b+%q
  ;! keeps %b <= 15
  ;! left 0 38570-2571*%b
  ;! shows %v <= 256*%b+256
  %b1 = add nsw i64 %b, 1
  br label %pieces
done:
  ;! left 0 1
  ret i64 %w
}

define i64 @main(i64 %n, i64 %m) {
  ;! requires %n >= 0
  ;! requires %n <= 4096
  ;! requires %m >= 1
  ;! requires %m <= 16
  ;! reads @text 0 4096
  ;! reads @pattern 0 16
  ;! writes @found 0 4096
  ;! writes @counts 0 16
  ;! writes @places 0 4096
  ;! budget 0 815547
entry:
  ;! left 0 815547
  %s = call token @llvm.syncregion.start()
  br label %head
head:
  ;! keeps %n >= 0
  ;! keeps %n <= 4096
  ;! keeps %m >= 1
  ;! keeps %m <= 16
  ;! keeps %b >= 0
  ;! keeps %b <= 16
  ;! pending %s reads @text 0 4096
  ;! pending %s reads @pattern 0 16
  ;! pending %s writes @found 0 256*%b
  ;! pending %s writes @counts 0 %b
  ;! left 0 815545-48400*%b
  %b = phi i64 [ 0, %entry ], [ %b1, %after ]
  %more = icmp slt i64 %b, 16
  br i1 %more, label %fork, label %wait
fork:
  ;! keeps %n >= 0
  ;! keeps %n <= 4096
  ;! keeps %m >= 1
  ;! keeps %m <= 16
  ;! keeps %b >= 0
  ;! keeps %b <= 15
  ;! pending %s reads @text 0 4096
  ;! pending %s reads @pattern 0 16
  ;! pending %s writes @found 0 256*%b
  ;! pending %s writes @counts 0 %b
  ;! left 0 815543-48400*%b
  detach within %s, label %look, label %after
look:
  ;! keeps %n >= 0
  ;! keeps %n <= 4096
  ;! keeps %m >= 1
  ;! keeps %m <= 16
  ;! keeps %b >= 0
  ;! keeps %b <= 15
  ;! left 0 48395
  ;! foot reads @text 0 4096
  ;! foot reads @pattern 0 16
  ;! foot writes @found 256*%b 256*%b+256
  ;! foot writes @counts %b %b+1
  call void @piece(ptr @text, ptr @pattern, ptr @found, ptr @counts, i64 %b, i64 %n, i64 %m)
  reattach within %s, label %after
after:
  ;! keeps %n >= 0
  ;! keeps %n <= 4096
  ;! keeps %m >= 1
  ;! keeps %m <= 16
  ;! keeps %b >= 0
  ;! keeps %b <= 15
  ;! pending %s reads @text 0 4096
  ;! pending %s reads @pattern 0 16
  ;! pending %s writes @found 0 256*%b
  ;! pending %s writes @counts 0 %b
  ;! pending %s writes @found 256*%b 256*%b+256
  ;! pending %s writes @counts %b %b+1
  ;! left 0 767147-48400*%b
  %b1 = add nsw i64 %b, 1
  br label %head
wait:
  ;! pending %s reads @text 0 4096
  ;! pending %s reads @pattern 0 16
  ;! pending %s writes @found 0 256*%b
  ;! pending %s writes @counts 0 %b
  ;! left 0 41143
  sync within %s, label %all
all:
  ;! left 0 41142
  %r = call i64 @gather()
  ret i64 %r
}
