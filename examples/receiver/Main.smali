# Writes into the log what the receiver kept.
.class public La/Main;
.super Landroid/app/Activity;

.method public onResume()V
    .registers 3
    const-string v0, "last"
    sget-object v1, La/Got;->last:Ljava/lang/String;
    invoke-static {v0, v1}, Landroid/util/Log;->d(Ljava/lang/String;Ljava/lang/String;)I
    return-void
.end method
