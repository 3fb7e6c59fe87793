# Posts what the application object keeps.
.class public La/Main;
.super Landroid/app/Activity;

.method public onCreate(Landroid/os/Bundle;)V
    .registers 3
    sget-object v0, La/App;->it:La/App;
    iget-object v0, v0, La/App;->id:Ljava/lang/String;
    invoke-static {v0}, Lvendor/Net;->post(Ljava/lang/Object;)V
    return-void
.end method
