.class public Lg/Gaps;
.super Ljava/lang/Object;

.field public static f38:I
.field public static f39:I
.field public static f40:I
.field private f03:I
.field private f05:I

.method static touch()V
    .registers 1
    sget v0, Lg/Gaps;->f00:I
    sget v0, Lg/Gaps;->f01:I
    sget v0, Lg/Gaps;->f02:I
    sget v0, Lg/Gaps;->f03:I
    sget v0, Lg/Gaps;->f04:I
    sget v0, Lg/Gaps;->f05:I
    sget v0, Lg/Gaps;->f06:I
    sget v0, Lg/Gaps;->f07:I
    sget v0, Lg/Gaps;->f08:I
    sget v0, Lg/Gaps;->f09:I
    sget v0, Lg/Gaps;->f10:I
    sget v0, Lg/Gaps;->f11:I
    sget v0, Lg/Gaps;->f12:I
    sget v0, Lg/Gaps;->f13:I
    sget v0, Lg/Gaps;->f14:I
    sget v0, Lg/Gaps;->f15:I
    sget v0, Lg/Gaps;->f16:I
    sget v0, Lg/Gaps;->f17:I
    sget v0, Lg/Gaps;->f18:I
    sget v0, Lg/Gaps;->f19:I
    sget v0, Lg/Gaps;->f20:I
    sget v0, Lg/Gaps;->f21:I
    sget v0, Lg/Gaps;->f22:I
    sget v0, Lg/Gaps;->f23:I
    sget v0, Lg/Gaps;->f24:I
    sget v0, Lg/Gaps;->f25:I
    sget v0, Lg/Gaps;->f26:I
    sget v0, Lg/Gaps;->f27:I
    sget v0, Lg/Gaps;->f28:I
    sget v0, Lg/Gaps;->f29:I
    sget v0, Lg/Gaps;->f30:I
    sget v0, Lg/Gaps;->f31:I
    sget v0, Lg/Gaps;->f32:I
    sget v0, Lg/Gaps;->f33:I
    sget v0, Lg/Gaps;->f34:I
    sget v0, Lg/Gaps;->f35:I
    sget v0, Lg/Gaps;->f36:I
    sget v0, Lg/Gaps;->f37:I
    sget v0, Lg/Gaps;->f38:I
    sget v0, Lg/Gaps;->f39:I
    sget v0, Lg/Gaps;->f40:I
    return-void
.end method
