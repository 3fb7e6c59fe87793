.class Lg/Held;
.super Ljava/lang/Object;

.field volatile a:Lg/Caller;
.field volatile b:[Lg/Held;
.field static c:S
.field static d:C
