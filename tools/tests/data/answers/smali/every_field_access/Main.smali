.class public La/Main;
.super Landroid/app/Activity;
.field public f0:I
.field public f1:J
.field public f2:Ljava/lang/Object;
.field public f3:Z
.field public f4:B
.field public f5:C
.field public f6:S
.field public static s0:I
.field public static s1:J
.field public static s2:Ljava/lang/Object;
.field public static s3:Z
.field public static s4:B
.field public static s5:C
.field public static s6:S
.method public onCreate(Landroid/os/Bundle;)V
    .registers 6
    invoke-static {}, Lvendor/Device;->id()Ljava/lang/String;
    move-result-object v0
    iput v0, p0, La/Main;->f0:I
    const/4 v0, 0
    iget v0, p0, La/Main;->f0:I
    iput-wide v0, p0, La/Main;->f1:J
    const/4 v0, 0
    iget-wide v0, p0, La/Main;->f1:J
    iput-object v0, p0, La/Main;->f2:Ljava/lang/Object;
    const/4 v0, 0
    iget-object v0, p0, La/Main;->f2:Ljava/lang/Object;
    iput-boolean v0, p0, La/Main;->f3:Z
    const/4 v0, 0
    iget-boolean v0, p0, La/Main;->f3:Z
    iput-byte v0, p0, La/Main;->f4:B
    const/4 v0, 0
    iget-byte v0, p0, La/Main;->f4:B
    iput-char v0, p0, La/Main;->f5:C
    const/4 v0, 0
    iget-char v0, p0, La/Main;->f5:C
    iput-short v0, p0, La/Main;->f6:S
    const/4 v0, 0
    iget-short v0, p0, La/Main;->f6:S
    invoke-static {v0}, Lvendor/Net;->post(Ljava/lang/Object;)V
    return-void
.end method
