.class public La/Task;
.super Ljava/lang/Object;
.implements Ljava/lang/Runnable;
.method public run()V
    .registers 2
    invoke-static {}, Lvendor/Device;->id()Ljava/lang/String;
    move-result-object v0
    invoke-static {v0}, Lvendor/Net;->post(Ljava/lang/Object;)V
    return-void
.end method
