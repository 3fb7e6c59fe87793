.class public La/Main;
.super Landroid/app/Activity;
.field private me:La/Main;
.field private id:Ljava/lang/String;
.method public onCreate(Landroid/os/Bundle;)V
    .registers 3
    iput-object p0, p0, La/Main;->me:La/Main;
    invoke-static {}, Lvendor/Device;->id()Ljava/lang/String;
    move-result-object v0
    iput-object v0, p0, La/Main;->id:Ljava/lang/String;
    return-void
.end method
.method public onStop()V
    .registers 2
    iget-object v0, p0, La/Main;->me:La/Main;
    iget-object v0, v0, La/Main;->id:Ljava/lang/String;
    invoke-static {v0}, Lvendor/Net;->post(Ljava/lang/Object;)V
    return-void
.end method
