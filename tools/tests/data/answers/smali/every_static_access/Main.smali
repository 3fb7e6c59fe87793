.class public La/Main;
.super Landroid/app/Activity;
.field public f0:I
.field public f1:J
.field public f2:Ljava/lang/Object;
.field public f3:Z
.field public f4:B
.field public f5:C
.field public f6:S
.field public static s0:I
.field public static s1:J
.field public static s2:Ljava/lang/Object;
.field public static s3:Z
.field public static s4:B
.field public static s5:C
.field public static s6:S
.method public onCreate(Landroid/os/Bundle;)V
    .registers 6
    invoke-static {}, Lvendor/Device;->id()Ljava/lang/String;
    move-result-object v0
    sput v0, La/Main;->s0:I
    const/4 v0, 0
    sget v0, La/Main;->s0:I
    sput-wide v0, La/Main;->s1:J
    const/4 v0, 0
    sget-wide v0, La/Main;->s1:J
    sput-object v0, La/Main;->s2:Ljava/lang/Object;
    const/4 v0, 0
    sget-object v0, La/Main;->s2:Ljava/lang/Object;
    sput-boolean v0, La/Main;->s3:Z
    const/4 v0, 0
    sget-boolean v0, La/Main;->s3:Z
    sput-byte v0, La/Main;->s4:B
    const/4 v0, 0
    sget-byte v0, La/Main;->s4:B
    sput-char v0, La/Main;->s5:C
    const/4 v0, 0
    sget-char v0, La/Main;->s5:C
    sput-short v0, La/Main;->s6:S
    const/4 v0, 0
    sget-short v0, La/Main;->s6:S
    invoke-static {v0}, Lvendor/Net;->post(Ljava/lang/Object;)V
    return-void
.end method
