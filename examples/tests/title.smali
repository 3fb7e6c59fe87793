# The device id becomes the title of the activity, and the title is posted.
.class public La/Main;
.super Landroid/app/Activity;
.method public onPause()V
    .registers 2
    invoke-static {}, Lvendor/Device;->id()Ljava/lang/String;
    move-result-object v0
    invoke-virtual {p0, v0}, La/Main;->setTitle(Ljava/lang/CharSequence;)V
    return-void
.end method
.method public onResume()V
    .registers 2
    invoke-virtual {p0}, La/Main;->getTitle()Ljava/lang/CharSequence;
    move-result-object v0
    invoke-static {v0}, Lvendor/Net;->post(Ljava/lang/Object;)V
    return-void
.end method
