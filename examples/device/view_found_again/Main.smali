# Puts the device id into a view of its layout, finds the view again, and sends what is kept in it.
.class public La/Main;
.super Landroid/app/Activity;

.method public constructor <init>()V
    .registers 1
    invoke-direct {p0}, Landroid/app/Activity;-><init>()V
    return-void
.end method

.method public onCreate(Landroid/os/Bundle;)V
    .registers 5
    const v0, 0x7f020000
    invoke-virtual {p0, v0}, La/Main;->setContentView(I)V
    const v0, 0x7f030000
    invoke-virtual {p0, v0}, La/Main;->findViewById(I)Landroid/view/View;
    move-result-object v1
    invoke-static {}, Lvendor/Device;->id()Ljava/lang/String;
    move-result-object v2
    invoke-virtual {v1, v2}, Landroid/view/View;->setTag(Ljava/lang/Object;)V
    invoke-virtual {p0, v0}, La/Main;->findViewById(I)Landroid/view/View;
    move-result-object v1
    invoke-virtual {v1}, Landroid/view/View;->getTag()Ljava/lang/Object;
    move-result-object v2
    invoke-static {v2}, Lvendor/Net;->post(Ljava/lang/Object;)V
    return-void
.end method
