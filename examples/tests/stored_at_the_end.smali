.class public La/Main;
.super Landroid/app/Activity;
.field public t:Ljava/lang/String;
.method public onCreate(Landroid/os/Bundle;)V
    .registers 3
    iget-object v0, p0, La/Main;->t:Ljava/lang/String;
    invoke-static {v0}, Lvendor/Net;->post(Ljava/lang/Object;)V
    return-void
.end method
.method public onDestroy()V
    .registers 2
    invoke-static {}, Lvendor/Device;->id()Ljava/lang/String;
    move-result-object v0
    iput-object v0, p0, La/Main;->t:Ljava/lang/String;
    return-void
.end method
