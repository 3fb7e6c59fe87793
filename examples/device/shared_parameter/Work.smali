# Is told the same configuration, and sends the number in it.
.class public La/Work;
.super Landroid/app/Service;

.method public constructor <init>()V
    .registers 1
    invoke-direct {p0}, Landroid/app/Service;-><init>()V
    return-void
.end method

.method public onConfigurationChanged(Landroid/content/res/Configuration;)V
    .registers 3
    iget v0, p1, Landroid/content/res/Configuration;->mcc:I
    invoke-static {v0}, Ljava/lang/String;->valueOf(I)Ljava/lang/String;
    move-result-object v0
    invoke-static {v0}, Lvendor/Net;->post(Ljava/lang/Object;)V
    return-void
.end method
