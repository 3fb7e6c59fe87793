.class public La/Old;
.super Landroid/app/Activity;

.method public tap(Landroid/view/View;)V
    .registers 2
    return-void
.end method
