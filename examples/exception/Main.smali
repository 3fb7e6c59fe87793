# A method throws an exception with the device id as its message; the message is caught and posted.
.class public La/Main;
.super Landroid/app/Activity;

.method public static fail()V
    .registers 2
    invoke-static {}, Lvendor/Device;->id()Ljava/lang/String;
    move-result-object v0
    new-instance v1, Ljava/lang/Exception;
    invoke-direct {v1, v0}, Ljava/lang/Exception;-><init>(Ljava/lang/String;)V
    throw v1
.end method

.method public onCreate(Landroid/os/Bundle;)V
    .registers 3
    :begin
    invoke-static {}, La/Main;->fail()V
    :end
    .catch Ljava/lang/Exception; {:begin .. :end} :caught
    return-void
    :caught
    move-exception v0
    invoke-virtual {v0}, Ljava/lang/Exception;->getMessage()Ljava/lang/String;
    move-result-object v0
    invoke-static {v0}, Lvendor/Net;->post(Ljava/lang/Object;)V
    return-void
.end method
