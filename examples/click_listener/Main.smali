# Keeps the device id, and posts it as the listener of a button.
.class public La/Main;
.super Landroid/app/Activity;
.implements Landroid/view/View$OnClickListener;

.field private id:Ljava/lang/String;

.method public onCreate(Landroid/os/Bundle;)V
    .registers 4
    invoke-static {}, Lvendor/Device;->id()Ljava/lang/String;
    move-result-object v0
    iput-object v0, p0, La/Main;->id:Ljava/lang/String;
    const/16 v0, 0x64
    invoke-virtual {p0, v0}, La/Main;->findViewById(I)Landroid/view/View;
    move-result-object v0
    invoke-virtual {v0, p0}, Landroid/view/View;->setOnClickListener(Landroid/view/View$OnClickListener;)V
    return-void
.end method

.method public onClick(Landroid/view/View;)V
    .registers 3
    iget-object v0, p0, La/Main;->id:Ljava/lang/String;
    invoke-static {v0}, Lvendor/Net;->post(Ljava/lang/Object;)V
    return-void
.end method
